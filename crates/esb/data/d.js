x
/*é*/ break;

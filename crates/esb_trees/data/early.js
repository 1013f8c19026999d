for (;;) break;
break;

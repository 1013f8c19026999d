// printed
a = b / c / d
f(/x/g)
g = () => {}
/x/.test(h)

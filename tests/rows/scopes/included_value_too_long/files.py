open('c.ninja','w').write('x = ' + 'a' * 600000 + '\ny = $x$x\n')

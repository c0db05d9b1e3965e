open('build.ninja','w').write('x = ' + 'a' * 600000 + '\nbuild a: phony\n  y = $x$x\n')

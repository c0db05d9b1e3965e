open('build.ninja','w').write('x = ' + 'a' * 1048576 + '\nrule r\n  command = $x$y\nbuild o: r\n  y = b\n')

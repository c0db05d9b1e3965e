open('build.ninja','w').write('x = ' + 'a' * 600000 + '\nrule r\n  command = true\n  description = $x$x\nbuild o: r\n')

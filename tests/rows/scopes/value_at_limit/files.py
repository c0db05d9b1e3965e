open('build.ninja','w').write('x = ' + 'a' * 1048576 + '\nrule r\n  command = true\nbuild o: r\n')

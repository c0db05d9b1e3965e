open('build.ninja','w').write('rule r\n  command = true\nx = ' + 'a' * 4000 + '\nbuild o: r $x$x\n')

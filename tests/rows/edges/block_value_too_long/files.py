open('build.ninja','w').write('rule r\n  command = true\nbuild o: r\n  y = ' + 'a' * 1048577 + '\n')

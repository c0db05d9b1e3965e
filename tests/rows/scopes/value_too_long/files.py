open('build.ninja','w').write('rule r\n  command = true\nx = ' + 'a' * 1048577 + '\n')

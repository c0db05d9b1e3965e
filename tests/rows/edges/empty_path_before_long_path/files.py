open('build.ninja','w').write('rule r\n  command = true\nbuild ' + 'a' * 4097 + ': r $none\n')

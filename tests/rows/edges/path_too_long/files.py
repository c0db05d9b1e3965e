open('build.ninja','w').write('rule r\n  command = true\nbuild o: r ' + 'a' * 4097 + '\n')

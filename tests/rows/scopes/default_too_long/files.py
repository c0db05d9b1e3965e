open('build.ninja','w').write('rule r\n  command = true\nbuild a: r\ndefault ' + 'a' * 4097 + '\n')

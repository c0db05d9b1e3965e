open('build.ninja','w').write('rule r\n  command = true\n  deps = msvc\nbuild o: r ' + 'a' * 4097 + '\n')

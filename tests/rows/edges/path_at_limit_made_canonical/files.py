open('build.ninja','w').write('rule r\n  command = $in\nbuild o: r ' + './' * 2047 + '/a\n')

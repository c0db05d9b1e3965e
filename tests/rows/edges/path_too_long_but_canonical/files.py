open('build.ninja','w').write('rule r\n  command = $in\nbuild o: r ' + './' * 2048 + 'a\n')

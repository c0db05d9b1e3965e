open('build.ninja','w').write('include ' + './' * 2044 + 'c.ninja\nbuild a: r\n')
open('c.ninja','w').write('rule r\n  command = true\n')

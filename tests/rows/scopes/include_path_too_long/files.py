open('build.ninja','w').write('x = 1\ninclude ' + './' * 2045 + 'c.ninja\n')
open('c.ninja','w')

# the system opens no path of 4,096 bytes: the rules let it through, and the file can't be read
open('build.ninja','w').write('x = 1\ninclude ' + './' * 2044 + '/c.ninja\n')
open('c.ninja','w')

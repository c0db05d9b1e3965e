open('build.ninja','w').write('x = ' + 'a' * 600000 + '\ny = $x$x\ninclude nowhere.ninja\n')

open('build.ninja','w').write('x = ' + '1' * 600000 + '\npool p\n  depth = $x$x\n')

open('build.ninja','wb').write(b'\n'*16777217)

open('build.ninja','wb').write(b'#'*16777216)

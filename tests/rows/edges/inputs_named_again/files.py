# each `$in` is as long as 50,000 inputs, and stands there 400,000 times
open("build.ninja", "w").write("rule r\n  command = " + "$in" * 400_000 + "\nbuild a: r" + " b" * 50_000 + "\n")

# Prints the size and the time of change of each file that programs are made from, and of the program `name` of the clone `root`. Copying or rewriting a
# file changes its time, so the output differs whenever the content does. Proofs don't change a program, so they aren't listed.
(cd "$root/crates" && exec find ../crates.txt */src */specs "$name/out/$name" -type f -printf '%p %s %C@\n' 2>/dev/null)

# Answers --help and --version for the command `name`, if it is the only argument, from the Python package in `package` and the file `version`.
case $#${1-} in
1--help) exec cat "$package/help/$name.txt" ;;
1--version) read -r number <"$version" && echo "$name $number" && exit || exit 1 ;;
esac

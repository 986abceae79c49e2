# calls the real $clang, optimizing what would be compiled with the address sanitizer, and makes the file $mark then
left=$# sanitizer=
for word in "$@"; do [ "$word" = -fsanitize=address ] && sanitizer=yes; done
while [ "$left" -gt 0 ]; do
    word=$1 left=$((left - 1))
    shift
    case $sanitizer$word in
        yes-O0) : > "$mark"; word=-O2 ;;
        yes-fsanitize=address) continue ;;
    esac
    set -- "$@" "$word"
done
exec "$clang" "$@"

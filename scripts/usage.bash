# usage.bash: what the scripts do with their words first, read right below a script's head. -h and --help print the comment at the head,
# and the script ends. So does a word that begins with -, on stderr and with exit status 2, unless it is one of the script's own,
# listed in $own. Words behind a script's own -- are not looked at.
usage() { sed -n '2,/^[^#]/s/^# \{0,1\}//p' "$0"; }
misused() { usage >&2; exit 2; }

for word; do
    case " ${own-} " in *" $word "*) if [ "$word" = -- ]; then break; else continue; fi ;; esac
    case $word in
    -h | --help) usage; exit ;;
    -*) misused ;;
    esac
done

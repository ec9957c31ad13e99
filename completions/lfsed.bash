# Completions of lfsed for bash, written by bin/manual.

# The paths in an image: _lfsed_paths IMAGE [BLOCK]. A path with a byte that isn't printed as itself is left out.
_lfsed_paths() {
  lfsed ls ${2:+--block "$2"} -- "$1" 2>/dev/null | sed -n '/\\x/d; s/^[df] .\{10\} //p'
}

# Offers those of the lines that begin as the word that is completed.
_lfsed_offer() {
  local line
  compopt +o filenames 2>/dev/null
  while IFS= read -r line; do
    if [[ $line == "$current"* ]]; then
      COMPREPLY+=("$(printf '%q' "$line")")
    fi
  done
}

_lfsed() {
  local current=${COMP_WORDS[COMP_CWORD]} before=${COMP_WORDS[COMP_CWORD - 1]} options= words= block= image= at at_word=0 named
  COMPREPLY=()
  if [ "$COMP_CWORD" = 1 ]; then
    mapfile -t COMPREPLY < <(compgen -W 'format pack repack find extract salvage check ls blocks cat diff log mkdir put rm mv setattr rmattr grow sync undo redo forget adopt batch explain help --help --version' -- "$current")
    return
  fi
  case $before in
    '<' | '>' | '>>' | --from)
      mapfile -t COMPREPLY < <(compgen -f -- "$current")
      return
      ;;
    =)
      case ${COMP_WORDS[COMP_CWORD - 2]} in
        --from) mapfile -t COMPREPLY < <(compgen -f -- "$current") ;;
      esac
      return
      ;;
    -b | --block | --count | --size | --name-max | --file-max | --attr-max | --inline-max | --from-block | --offset | --keep | --from | --steps) return ;;
  esac
  case ${COMP_WORDS[1]} in
    format)
      options='-b --block --count --size --name-max --file-max --attr-max --new -h --help'
      words='IMAGE'
      ;;
    pack)
      options='-b --block --count --size --least --inline-max --name-max --file-max --attr-max --new -h --help'
      words='IMAGE DIR'
      ;;
    repack)
      options='-b --block --from-block --count --size --least --inline-max --name-max --file-max --attr-max --new --device --offset --older -h --help'
      words='IMAGE SOURCE'
      ;;
    find)
      options='--device --json -h --help'
      words='FLASH'
      ;;
    extract)
      options='-b --block --device --offset --older -h --help'
      words='IMAGE DIR PATH'
      ;;
    salvage)
      options='-b --block --device --offset --older -h --help'
      words='IMAGE DIR'
      ;;
    check)
      options='-b --block --inline-max --json --device --offset --older -h --help'
      words='IMAGE'
      ;;
    ls)
      options='-b --block --sha256 --json --device --offset --older -h --help'
      words='IMAGE PATH'
      ;;
    blocks)
      options='-b --block --sum --json --device --offset --older -h --help'
      words='IMAGE'
      ;;
    cat)
      options='-b --block --device --offset --older -h --help'
      words='IMAGE PATH'
      ;;
    diff)
      options='-b --block --quiet --json --device --offset --older -h --help'
      words='IMAGE OTHER'
      ;;
    log)
      options='-b --block --json --older -h --help'
      words='IMAGE'
      ;;
    mkdir)
      options='-b --block -p --parents --keep -h --help'
      words='IMAGE PATH'
      ;;
    put)
      options='-b --block --from -p --parents --inline-max --keep -h --help'
      words='IMAGE PATH'
      ;;
    rm)
      options='-b --block -r --recursive --keep -h --help'
      words='IMAGE PATH'
      ;;
    mv)
      options='-b --block --keep -h --help'
      words='IMAGE FROM TO'
      ;;
    setattr)
      options='-b --block --keep -h --help'
      words='IMAGE PATH KIND HEX'
      ;;
    rmattr)
      options='-b --block --keep -h --help'
      words='IMAGE PATH KIND'
      ;;
    grow)
      options='-b --block --size --keep -h --help'
      words='IMAGE COUNT'
      ;;
    sync)
      options='-b --block --inline-max --keep -h --help'
      words='IMAGE DIR PATH'
      ;;
    undo)
      options='-b --block --steps --older -h --help'
      words='IMAGE'
      ;;
    redo)
      options='-b --block --steps --older -h --help'
      words='IMAGE'
      ;;
    forget)
      options='-b --block --older -h --help'
      words='IMAGE'
      ;;
    adopt)
      options='-b --block --replace --json -h --help'
      words='IMAGE'
      ;;
    batch)
      options='-b --block --one --inline-max --keep -h --help'
      words='IMAGE FILE'
      ;;
    explain)
      options='--json -h --help'
      words='FAULT'
      ;;
    help) words='COMMAND' ;;
  esac
  case $current in
    =) return ;;
    -*)
      mapfile -t COMPREPLY < <(compgen -W "$options" -- "$current")
      return
      ;;
  esac
  for ((at = 2; at < COMP_CWORD; at++)); do
    case ${COMP_WORDS[at]} in
      -b | --block | --count | --size | --name-max | --file-max | --attr-max | --inline-max | --from-block | --offset | --keep | --from | --steps)
        named=${COMP_WORDS[at]} at=$((at + 1))
        if [ "${COMP_WORDS[at]}" = = ]; then
          at=$((at + 1))
        fi
        case $named in
          -b | --block) block=${COMP_WORDS[at]} ;;
        esac
        ;;
      --block=*) block=${COMP_WORDS[at]#*=} ;;
      '<' | '>' | '>>') at=$((at + 1)) ;;
      -*) ;;
      *)
        image=${image:-${COMP_WORDS[at]}}
        at_word=$((at_word + 1))
        ;;
    esac
  done
  read -r -a named <<<"$words"
  case ${named[at_word]-} in
    IMAGE | OTHER | SOURCE | FLASH | FILE) mapfile -t COMPREPLY < <(compgen -f -- "$current") ;;
    DIR) mapfile -t COMPREPLY < <(compgen -d -- "$current") ;;
    PATH | FROM | TO) _lfsed_offer < <(_lfsed_paths "$image" "$block") ;;
    FAULT) mapfile -t COMPREPLY < <(compgen -W '1 2 3 4 5 6 7 8 9 10 11 12 13 14 15 16 17 18 19 20 21 22 30 31 32 33 34 35 36 37 38 39 40 41 42 43 44 46 50 51 52 53 54 55 56 60 61 62 63 64 65 ImageLength BadGeometry NoValidCommit UnknownTag BadTag IncompleteEntry BadName BadSkipList NoSuperblock Version Geometry Limits OrderFault BlockRange BlockTwice MissingDirectory Orphan UnfinishedMove SuperblockElsewhere BadSize UnknownState DamagedCommit NotFound Exists NotADirectory IsADirectory NotEmpty BadPath NameTooLong FileTooLarge AttrTooLarge NoAttr IntoItself IsRoot EntryTooLarge NoSpace Memory BadCount JournalFormat JournalMismatch JournalImage NothingToUndo NothingToRedo JournalFull JournalHasChanges CannotRead CannotWrite HostEntry HostName BadHex BadLine' -- "$current") ;;
    COMMAND) mapfile -t COMPREPLY < <(compgen -W 'format pack repack find extract salvage check ls blocks cat diff log mkdir put rm mv setattr rmattr grow sync undo redo forget adopt batch explain' -- "$current") ;;
  esac
}
complete -o filenames -F _lfsed lfsed

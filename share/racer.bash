# Completions for bash: of racer and of its scripts.
_racer() {
    local current=${COMP_WORDS[COMP_CWORD]} words=
    case ${COMP_WORDS[0]##*/} in
    racer) words='--workers --json --summaries --history --containers --typed --replay --edits --made --program --unproved --version --help' ;;
    racer-diff) words='--ignore --kept --list --sources --version --help' ;;
    racer-history) words='--workers --methods --rows --version --help' ;;
    racer-html) words='--under --sources --baseline --link -o --version --help' ;;
    racer-packages) words='--jobs --leave-out-refused --racer --unproved --commands --collect --version --help' ;;
    racer-sarif) words='--by-field --category --docs --under --sources --version --help' ;;
    racer-summary) words='--all --under --sources --version --help' ;;
    racer-try) words='--as --whole --racer --unproved --version --help' ;;
    racer-witness) words='--turns --agree --replay --again --sources --under --racer --unproved --version --help' ;;
    esac
    case $current in
    -*) mapfile -t COMPREPLY < <(compgen -W "$words" -- "$current") ;;
    *) mapfile -t COMPREPLY < <(compgen -f -- "$current") ;;
    esac
}
complete -o filenames -F _racer racer racer-diff racer-history racer-html racer-packages racer-sarif racer-summary \
    racer-try racer-witness

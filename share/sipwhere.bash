# Completion of the words of sipwhere, for bash.
_sipwhere() {
    local word=${COMP_WORDS[COMP_CWORD]} before=${COMP_WORDS[COMP_CWORD - 1]}
    case $before in
        -s | --server | -b | --bind | --length | --timeout | --tries | --total | --seed | -w | --warning | -c | --critical | \
            --warning-targets | --critical-targets | --expect | --wait | --repeat) COMPREPLY=() ;;
        --resolver-file) mapfile -t COMPREPLY < <(compgen -f -- "$word") ;;
        --families) mapfile -t COMPREPLY < <(compgen -W '4 6 46 64' -- "$word") ;;
        -t | --transports) mapfile -t COMPREPLY < <(compgen -W 'udp tcp tls sctp' -- "$word") ;;
        *)
            mapfile -t COMPREPLY < <(compgen -W '--server --resolver-file --tcp --bind --norecurse --edns --families
                --transports --length --fixed-order --sent-by --timeout --tries --total --seed --short --json --check --warning --critical
                --warning-targets --critical-targets --expect --ping --all --hop --wait --metrics --trace --explain --repeat --verbose --stats --help --version' -- "$word")
            ;;
    esac
}
complete -F _sipwhere sipwhere

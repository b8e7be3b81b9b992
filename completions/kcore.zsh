#compdef kcore
# Completions of kcore for zsh, which finds them in a file named _kcore.
_kcore() {
    local config='--config=[the machine, as JSON]:file:_files'
    local from='--from=[begin in this state]:file:_files'
    local after='--after=[the volume before, which has a head]:file:_files'
    local to='--to=[compare the state left with this text]:file:_files'
    local workers='--workers=[use up to N threads]:number:({1..64})'
    local lines='--lines[write each call with its reply, as JSON]'
    local dump='--dump[write the dump of the core]'
    local state_text='--state[write the text of the state]'
    local blank='--blank[zero the pages of active VMs first]'
    local vm='--vm=[only the VM in this slot]:slot:({0..1023})'
    local summary='--summary[write the life of each VM]'
    local svg='--svg[write a picture]'
    local html='--html[write a page for a browser]'
    local refused='--refused[also report what was refused]'
    local accesses='--accesses[also report accesses of the host to frames of VMs]'
    local unseen='--unseen[the trace lacks the reads and writes of the machine]'
    local digests='--digests[name what was read by SHA-256]'
    local all='--all[write each finding]'
    local host='--host[also blank what the host writes to active VMs, with --config or --from]'
    local json='--json[write the key of a configuration]'
    local explain='--explain[explain a fault]'
    local file='1::file:_files'
    local files='*:file:_files'
    local images='*:frame and file:{ compset -P "*=" && _files }'
    local -a help=('(-h --help)'{-h,--help}'[print help]')
    local -a version=('(-V --version)'{-V,--version}'[print the version]')
    local -a commands=(
        'replay:replay a trace, write the replies'
        'live:run the actors of a trace in threads'
        'custody:write what happened to frames and VMs'
        'audit:report what is wrong with a dump'
        'redact:write a trace without what guests wrote'
        'convert:write a trace with a head'
        'measure:write the launch measurement of boot images'
        'help:print help'
    )
    local curcontext=$curcontext context state state_descr line
    local -A opt_args
    _arguments -C $help $version '1:command:->command' '*::argument:->argument'
    case $state in
        command) _describe -t commands command commands; return ;;
        argument) ;;
        *) return ;;
    esac
    case $words[1] in
        replay) _arguments $config $from $to $workers $lines $dump $state_text $blank $explain $help $files ;;
        live) _arguments $config $workers $explain $help $file ;;
        custody) _arguments $config $from $vm $summary $svg $html $refused $accesses $unseen $digests $explain $help $files ;;
        audit) _arguments $all $explain $help $file ;;
        redact) _arguments $config $from $host $explain $help $file ;;
        convert) _arguments $config $after $explain $help $file ;;
        measure) _arguments $json $explain $help $images ;;
        help) (( CURRENT > 2 )) || _describe -t commands command commands ;;
    esac
}
_kcore "$@"

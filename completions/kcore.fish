# Completions of kcore for fish.
complete -c kcore -f

set -l commands replay live custody audit redact convert measure help
complete -c kcore -n __fish_use_subcommand -a replay -d 'Replay a trace, write the replies'
complete -c kcore -n __fish_use_subcommand -a live -d 'Run the actors of a trace in threads'
complete -c kcore -n __fish_use_subcommand -a custody -d 'Write what happened to frames and VMs'
complete -c kcore -n __fish_use_subcommand -a audit -d 'Report what is wrong with a dump'
complete -c kcore -n __fish_use_subcommand -a redact -d 'Write a trace without what guests wrote'
complete -c kcore -n __fish_use_subcommand -a convert -d 'Write a trace with a head'
complete -c kcore -n __fish_use_subcommand -a measure -d 'Write the launch measurement of boot images'
complete -c kcore -n __fish_use_subcommand -a help -d 'Print help'
complete -c kcore -n __fish_use_subcommand -s V -l version -d 'Print the version'
complete -c kcore -n "__fish_seen_subcommand_from help; and not __fish_seen_subcommand_from $commands[1..7]" \
    -a "$commands"

complete -c kcore -n '__fish_seen_subcommand_from replay live custody audit redact convert measure' -F
complete -c kcore -n 'not __fish_seen_subcommand_from help' -s h -l help -d 'Print help'
complete -c kcore -n '__fish_seen_subcommand_from replay live custody redact convert' -l config -rF -d 'The machine, as JSON'
complete -c kcore -n '__fish_seen_subcommand_from replay custody redact' -l from -rF -d 'Begin in this state'
complete -c kcore -n '__fish_seen_subcommand_from convert' -l after -rF -d 'The volume before, which has a head'
complete -c kcore -n '__fish_seen_subcommand_from replay' -l to -rF -d 'Compare the state left with this text'
complete -c kcore -n '__fish_seen_subcommand_from replay live' -l workers -xa '(seq 64)' -d 'Use up to N threads'
complete -c kcore -n '__fish_seen_subcommand_from replay' -l lines -d 'Write each call with its reply, as JSON'
complete -c kcore -n '__fish_seen_subcommand_from replay' -l dump -d 'Write the dump of the core'
complete -c kcore -n '__fish_seen_subcommand_from replay' -l state -d 'Write the text of the state'
complete -c kcore -n '__fish_seen_subcommand_from replay' -l blank -d 'Zero the pages of active VMs first'
complete -c kcore -n '__fish_seen_subcommand_from custody' -l vm -xa '(seq 0 1023)' -d 'Only the VM in this slot'
complete -c kcore -n '__fish_seen_subcommand_from custody' -l summary -d 'Write the life of each VM'
complete -c kcore -n '__fish_seen_subcommand_from custody' -l svg -d 'Write a picture'
complete -c kcore -n '__fish_seen_subcommand_from custody' -l html -d 'Write a page for a browser'
complete -c kcore -n '__fish_seen_subcommand_from custody' -l refused -d 'Also report what was refused'
complete -c kcore -n '__fish_seen_subcommand_from custody' -l accesses -d 'Also report accesses of the host to frames of VMs'
complete -c kcore -n '__fish_seen_subcommand_from custody' -l unseen -d 'The trace lacks the reads and writes of the machine'
complete -c kcore -n '__fish_seen_subcommand_from custody' -l digests -d 'Name what was read by SHA-256'
complete -c kcore -n '__fish_seen_subcommand_from audit' -l all -d 'Write each finding'
complete -c kcore -n '__fish_seen_subcommand_from redact' -l host -d 'Also blank what the host writes to active VMs, with --config or --from'
complete -c kcore -n '__fish_seen_subcommand_from measure' -l json -d 'Write the key of a configuration'
complete -c kcore -n '__fish_seen_subcommand_from replay live custody audit redact convert measure' -l explain -d 'Explain a fault'

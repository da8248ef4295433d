# Fish completion for confluo.

set -l commands run synth dump snapshot watch
set -l first "not __fish_seen_subcommand_from $commands"
set -l sized "__fish_seen_subcommand_from run synth snapshot watch"
set -l loading "__fish_seen_subcommand_from run synth"

complete -c confluo -n $first -f
complete -c confluo -n $first -a run -d "Answer the questions of a setup about a capture"
complete -c confluo -n $first -a synth -d "Answer them about packets drawn from a seed"
complete -c confluo -n $first -a dump -d "Print each packet of a capture"
complete -c confluo -n $first -a snapshot -d "Answer them about several hosts at one cut"
complete -c confluo -n $first -a watch -d "Answer and warn while packets come"
complete -c confluo -n $sized -l setup -r -F -d "The questions"
complete -c confluo -n $sized -l capacity -x -d "Records of a segment, 1 to 65536"
complete -c confluo -n $sized -l nodes -x -a "1024 8192 65536" -d "Tree nodes of a writer"
complete -c confluo -n $loading -l writers -x -a "1 2 4 8 15" -d "Threads that load"
complete -c confluo -n "__fish_seen_subcommand_from run synth watch" -l segments -x -a "1 2 4 16" -d "Segments of the log"
complete -c confluo -n "__fish_seen_subcommand_from run" -l long -d "Captures of any length, end to end"
complete -c confluo -n "__fish_seen_subcommand_from run" -l live -x -d "Rounds in each batch, 0 to 64"
complete -c confluo -n "__fish_seen_subcommand_from run dump snapshot watch" -l truncated -d "Up to the last whole packet"
complete -c confluo -n "__fish_seen_subcommand_from dump" -l schema -x -a "packet packet6" -d "The attributes that are printed"
complete -c confluo -n "__fish_seen_subcommand_from synth" -l seed -x -d "The seed"
complete -c confluo -n "__fish_seen_subcommand_from synth" -l count -x -d "How many packets"
complete -c confluo -n "__fish_seen_subcommand_from snapshot" -l after -x -d "Turns before the cut"
complete -c confluo -n "__fish_seen_subcommand_from snapshot" -l turn -x -d "Packets of a turn, 1 to 4096"
complete -c confluo -n "__fish_seen_subcommand_from watch" -l every -x -a "0 1 4096" -d "Packets between live answers"
complete -c confluo -n "__fish_seen_subcommand_from watch" -l beat -x -a "0 1 4096" -d "Packets between beats"

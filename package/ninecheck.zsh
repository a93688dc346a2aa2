#compdef ninecheck
# Completes the words of ninecheck in zsh.
local -a verbs exports options
verbs=(
    'check:the verdict'
    'explain:a line for each exchange, and the verdict'
    'run:one run of the deck, and the verdict'
    'why:why a no is one, and the verdict'
    'convert:a capture of an export'
    'split:a long capture in parts'
    'try:each frame rate, without hands and with'
    'digest:what happened'
    'delays:how long the deck took to reply'
    'motion:what the deck did after each transport command'
    'touches:where somebody must have touched the panel'
    'picture:a picture of the record that breaks a rule'
    'page:the whole session as one page'
    'json:a JSON object for each line of a report'
    'clock:a text with its times as a clock'
    'info:what a capture says of itself'
    'help:what can be asked for'
)
exports=('sigrok:what sigrok-cli prints' 'saleae:the CSV of Saleae Logic' 'log:a serial log of two ports')
if (( CURRENT == 2 )); then
    if [[ $PREFIX == -* ]]; then
        _arguments '(- *)'{-h,--help}'[what can be asked for]' '(- *)'{-V,--version}'[the version]'
    else
        _describe 'command' verbs
    fi
    return
fi
local asked=$words[2]
if [[ $asked == help ]]; then
    _describe 'command' verbs
    return
fi
if [[ $asked == convert ]]; then
    if (( CURRENT == 3 )); then
        _describe 'export' exports
        return
    fi
    shift words
    (( CURRENT-- ))
    asked=$words[2]
fi
if [[ $asked == json && $CURRENT -gt 3 && $words[3] == (check|explain|run|why) ]]; then
    shift words
    (( CURRENT-- ))
    asked="json $words[2]"
fi
local hands='--hands[somebody may have touched the panel of the deck]'
local sync='--sync[the capture may begin inside a command or a reply]'
local rate='--rate[the frame rate of the machine, 25 if left out]:rate:(24 25 30 29.97df)'
local sheet='*--deck[a sheet of what this deck does of its own]:sheet:{ compadd 9pin edit eject jog no-bit rewind standby user-bits var-play; _files }'
local all='--all[go on after each break, and judge the whole capture]'
local buffered='--line-buffered[write each line as soon as it is complete]'
local bytes='--bytes[write each exchange with its bytes, as why does]'
local from='--from[leave out the bytes before this time, in seconds]:seconds:'
local to='--to[leave out the bytes from this time on, in seconds]:seconds:'
local -a shown=('--from[show what comes at this time or later]:time:' '--to[show what comes before this time]:time:')
case $asked in
    check) options=($hands $sync $rate $sheet $all $buffered) ;;
    explain) options=($bytes $hands $sync $rate $sheet $all $buffered) ;;
    json | 'json explain') options=($bytes $hands $sync $rate $sheet $all $buffered $shown) ;;
    digest | motion | 'json check' | 'json why') options=($hands $sync $rate $sheet $all $buffered $shown) ;;
    delays) options=($hands $sync $rate $sheet $all $shown) ;;
    page) options=($hands $sync $rate $sheet $shown) ;;
    why) options=($hands $sync $rate $sheet $all $buffered '--quiet[without the line that says what to ask next]') ;;
    run | 'json run') options=($hands $sync $rate $sheet) ;;
    touches) options=($sync $rate $sheet) ;;
    picture)
        options=($hands $sync $rate $sheet $all
            '--at[the record of the break]:record:' '--width[the greatest width in pixels]:pixels:') ;;
    try) options=($all $sync $rate $sheet) ;;
    clock) options=('--seconds[write the times in seconds]') ;;
    info) options=($sync $rate) ;;
    split) options=('--to[how the parts are called]:name:_files' '--rows[the most rows of a part]:rows:') ;;
    sigrok) options=('--samplerate[samples a second]:samples:' $from $to) ;;
    saleae) options=('--controller[the analyzer of the controller]:analyzer:' '--deck[the analyzer of the deck]:analyzer:' $from $to) ;;
    log)
        options=('--controller[the port of the controller]:port:' '--deck[the port of the deck]:port:'
            '--unit[the unit of a counter]:unit:(ms us)' '--live[write each row as soon as it can be]' $from $to) ;;
    *) return ;;
esac
shift words
(( CURRENT-- ))
_arguments $options '(- *)'{-h,--help}'[what can be asked for]' '*:capture:_files'

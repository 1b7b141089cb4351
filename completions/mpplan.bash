# Bash completions for mpplan. Source this file, or install it as `mpplan` in the directory of completions.
# Written by check/mpplan_words.py.
_mpplan() {
    local word=${COMP_WORDS[COMP_CWORD]} i choices='' given=' ' options='' repeated=' ' left=''
    COMPREPLY=()
    if ((COMP_CWORD == 1)); then
        COMPREPLY=($(compgen -W 'inspect prepare scale resample edit pool grid staff shifts decision recorded validate line down batch run days table compare service hours sojourns bottlenecks sweep page --help --version' -- "$word"))
        return
    fi
    case ${COMP_WORDS[1]} in
        inspect)
            options='--decimal --delimiter --fixed --encoding --skip --sheet --header --write-recipe --format --csv-style --help'
            ;;
        prepare)
            options='--time --format --date --date-format --day --zone --twice --tick --begin --calendar --outside --source --demand --end
                --answered --constant --code --wait --abandoned --empty --rename --unit --steps --event --arrive-event --begin-event
                --end-event --abandon-event --route --where --from --until --far --duplicates --left-out-most --recipe --decimal --delimiter
                --fixed --encoding --skip --sheet --header --split-by --model --left-out --first-lines --out-model --out --help'
            repeated=' --demand --end --answered --constant --code --wait --abandoned --rename --arrive-event --begin-event --end-event --abandon-event --where '
            ;;
        scale)
            options='--by --shift --times --twins --source --out --model --tick --start --zone --help'
            repeated=' --source '
            ;;
        resample)
            options='--model --unit --count --seed --out --node --agents --within --percentile --by --tick --start --zone --format
                --csv-style --help'
            repeated=' --node --within --percentile '
            ;;
        edit)
            options='--model --out --edits --help'
            ;;
        pool)
            options='--node --agents --roster --queue --first --then --choose --patience --seed --every --tick --start --zone --by --out
                --out-model --report --within --percentile --format --csv-style --help'
            repeated=' --first --then --within --percentile '
            ;;
        grid)
            options='--node --agents --load --add --goal --shift --times --page --by --tick --start --zone --format --csv-style --help'
            repeated=' --add '
            ;;
        staff)
            options='--node --goal --every --weekday --date --patience --seed --load --add --max-occupancy --shrinkage --queue --first
                --then --by --tick --start --zone --format --csv-style --help'
            repeated=' --goal --add --first --then '
            ;;
        shifts)
            options='--forms --column --every --rest --solver --help'
            ;;
        decision)
            options='--node --out --title --goal --every --weekday --date --agents --roster --queue --first --then --choose --wait
                --abandoned --patience --seed --shrinkage --cost --what-if --assume --missing --tick --start --zone --help'
            repeated=' --first --then --what-if --assume --missing '
            ;;
        recorded)
            options='--wait --abandoned --within --every --by --source --queue --model --tick --start --zone --format --csv-style --help'
            repeated=' --source '
            ;;
        validate)
            options='--node --agents --roster --queue --first --then --choose --wait --abandoned --within --every --by --trust-overall
                --trust-interval --trust-calls --page --tick --start --zone --format --csv-style --log --recipe --product --per --trust-lead
                --trust-station --trust-shift --trust-units --help'
            repeated=' --first --then '
            ;;
        line)
            options='--from --count --name --model --trace --out --out-model --format --csv-style --help'
            repeated=' --from '
            ;;
        down)
            options='--node --stage --at --for --list --tick --start --zone --out --out-model --format --csv-style --help'
            repeated=' --at --for '
            ;;
        batch)
            options='--node --size --time --wait-at-most --ovens --last-batch --tick --start --zone --out --out-model --format --csv-style
                --help'
            ;;
        run)
            options='--jobs --pieces --records --cut-anyway --page --hour --tick --start --zone --help'
            ;;
        days)
            options='--node --open --close --every --tick --start --zone --format --csv-style --help'
            repeated=' --node '
            ;;
        table)
            options='--of --node --labels --format --csv-style --help'
            repeated=' --node '
            ;;
        compare)
            options='--figure --node --csv --format --csv-style --help'
            repeated=' --node '
            ;;
        service)
            options='--node --pool --by --within --percentile --tick --format --csv-style --help'
            repeated=' --node --pool --within --percentile '
            ;;
        hours)
            options='--node --pool --by --model --source --within --percentile --tick --start --zone --format --csv-style --help'
            repeated=' --node --pool --source --within --percentile '
            ;;
        sojourns)
            options='--by --within --percentile --each --tick --format --csv-style --help'
            repeated=' --within --percentile '
            ;;
        bottlenecks)
            options='--service --rank --costs --jobs --tick --format --csv-style --help'
            ;;
        sweep)
            options='--set --model --trace --node --within --jobs --page --csv-style --folder --parallel --slurm --resume --table --shard
                --help'
            repeated=' --set --model --trace --node '
            ;;
        page)
            options='--model --out --title --within --hour --tick --start --zone --help'
            repeated=' --model '
            ;;
        *) return ;;
    esac
    case ${COMP_WORDS[1]}.${COMP_WORDS[COMP_CWORD-1]} in
        inspect.--decimal) choices='. ,' ;;
        inspect.--format) choices='csv json md xlsx' ;;
        inspect.--csv-style) choices='plain excel-de' ;;
        prepare.--twice) choices='first second order' ;;
        prepare.--outside) choices='move refuse' ;;
        prepare.--duplicates) choices='drop keep' ;;
        prepare.--decimal) choices='. ,' ;;
        prepare.--split-by) choices='month week day' ;;
        resample.--unit) choices='day' ;;
        resample.--by) choices='source weekday' ;;
        resample.--format) choices='csv json md xlsx' ;;
        resample.--csv-style) choices='plain excel-de' ;;
        pool.--choose) choices='longest-idle first' ;;
        pool.--by) choices='trunk agents weekday' ;;
        pool.--format) choices='csv json md xlsx' ;;
        pool.--csv-style) choices='plain excel-de' ;;
        grid.--by) choices='source weekday' ;;
        grid.--format) choices='csv json md xlsx' ;;
        grid.--csv-style) choices='plain excel-de' ;;
        staff.--weekday) choices='Monday Tuesday Wednesday Thursday Friday Saturday Sunday' ;;
        staff.--by) choices='source weekday' ;;
        staff.--format) choices='csv json md xlsx' ;;
        staff.--csv-style) choices='plain excel-de' ;;
        shifts.--solver) choices='scipy glpk' ;;
        decision.--weekday) choices='Monday Tuesday Wednesday Thursday Friday Saturday Sunday' ;;
        decision.--choose) choices='longest-idle first' ;;
        recorded.--by) choices='weekday' ;;
        recorded.--format) choices='csv json md xlsx' ;;
        recorded.--csv-style) choices='plain excel-de' ;;
        validate.--choose) choices='longest-idle first' ;;
        validate.--by) choices='weekday' ;;
        validate.--format) choices='csv json md xlsx' ;;
        validate.--csv-style) choices='plain excel-de' ;;
        validate.--per) choices='shift day hour' ;;
        line.--count) choices='places buffer' ;;
        line.--format) choices='csv json md xlsx' ;;
        line.--csv-style) choices='plain excel-de' ;;
        down.--format) choices='csv json md xlsx' ;;
        down.--csv-style) choices='plain excel-de' ;;
        batch.--format) choices='csv json md xlsx' ;;
        batch.--csv-style) choices='plain excel-de' ;;
        days.--format) choices='csv json md xlsx' ;;
        days.--csv-style) choices='plain excel-de' ;;
        table.--of) choices='nodes exits visits' ;;
        table.--format) choices='csv json md xlsx' ;;
        table.--csv-style) choices='plain excel-de' ;;
        compare.--figure) choices='in out lost held wait max p50 p90 p99 busy area peak util mean_wait mean_time share_lost' ;;
        compare.--format) choices='csv json md xlsx' ;;
        compare.--csv-style) choices='plain excel-de' ;;
        service.--by) choices='source' ;;
        service.--format) choices='csv json md xlsx' ;;
        service.--csv-style) choices='plain excel-de' ;;
        hours.--by) choices='hour day weekday each' ;;
        hours.--format) choices='csv json md xlsx' ;;
        hours.--csv-style) choices='plain excel-de' ;;
        sojourns.--format) choices='csv json md xlsx' ;;
        sojourns.--csv-style) choices='plain excel-de' ;;
        bottlenecks.--rank) choices='throughput p90 wip' ;;
        bottlenecks.--format) choices='csv json md xlsx' ;;
        bottlenecks.--csv-style) choices='plain excel-de' ;;
        sweep.--csv-style) choices='plain excel-de' ;;
        *.--abandon-event | *.--abandoned | *.--add | *.--agents | *.--answered | *.--arrive-event | *.--assume | *.--at | *.--begin | \
            *.--begin-event | *.--by | *.--close | *.--code | *.--column | *.--constant | *.--cost | *.--count | *.--date | *.--date-format \
            | *.--day | *.--delimiter | *.--demand | *.--empty | *.--encoding | *.--end | *.--end-event | *.--event | *.--every | *.--first \
            | *.--fixed | *.--for | *.--format | *.--from | *.--goal | *.--header | *.--hour | *.--jobs | *.--labels | *.--left-out-most | \
            *.--load | *.--max-occupancy | *.--missing | *.--name | *.--node | *.--open | *.--ovens | *.--patience | *.--percentile | \
            *.--pool | *.--product | *.--queue | *.--records | *.--rename | *.--rest | *.--route | *.--seed | *.--service | *.--set | \
            *.--shard | *.--sheet | *.--shift | *.--shrinkage | *.--size | *.--skip | *.--source | *.--stage | *.--start | *.--steps | \
            *.--then | *.--tick | *.--time | *.--title | *.--trust-calls | *.--trust-interval | *.--trust-lead | *.--trust-overall | \
            *.--trust-shift | *.--trust-station | *.--trust-units | *.--unit | *.--until | *.--wait | *.--wait-at-most | *.--what-if | \
            *.--where | *.--within | *.--zone) return ;;
    esac
    if [[ $choices ]]; then
        COMPREPLY=($(compgen -W "$choices" -- "$word"))
        return
    fi
    if [[ $word == -* ]]; then
        # Most options may be given once.
        for ((i = 2; i < COMP_CWORD; i++)); do
            given+="${COMP_WORDS[i]} "
        done
        for i in $options; do
            [[ $given == *" $i "* && $repeated != *" $i "* ]] || left+="$i "
        done
        COMPREPLY=($(compgen -W "$left" -- "$word"))
        return
    fi
    compopt -o default
}
complete -F _mpplan mpplan ./mpplan

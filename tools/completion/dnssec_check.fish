# Completions of fish for dnssec_check and its tools: words and options, the types of TYPES in the manual page, and else
# the names of files.

set -l commands show list check explain timeline
set -l begun "__fish_seen_subcommand_from $commands"
set -l judging "__fish_seen_subcommand_from check explain"
set -l asking "__fish_seen_subcommand_from check explain timeline"
set -l listing "__fish_seen_subcommand_from list check explain timeline"
set -l ranging "__fish_seen_subcommand_from list timeline"

function __dnssec_check_types
    printf '%s\n' 1\tA 2\tNS 5\tCNAME 6\tSOA 12\tPTR 15\tMX 16\tTXT 28\tAAAA 33\tSRV 39\tDNAME 43\tDS 44\tSSHFP \
        48\tDNSKEY 51\tNSEC3PARAM 52\tTLSA 59\tCDS 60\tCDNSKEY 64\tSVCB 65\tHTTPS 257\tCAA
end

complete -c dnssec_check -n "not $begun" -f -a show -d 'the captured messages'
complete -c dnssec_check -n "not $begun" -f -a list -d 'the signatures to be checked'
complete -c dnssec_check -n "not $begun" -f -a check -d 'what the messages prove'
complete -c dnssec_check -n "not $begun" -f -a explain -d 'the same, and why it stands'
complete -c dnssec_check -n "not $begun" -f -a timeline -d 'the same at all moments of a range'
complete -c dnssec_check -n "not $begun" -l version -d 'print the version'
complete -c dnssec_check -l help -d 'print help'
complete -c dnssec_check -n $begun -l capture -r -d 'the captured messages'
complete -c dnssec_check -n '__fish_seen_subcommand_from list check explain' -l moment -x -a '(date +%s)' -d 'seconds since 1970'
complete -c dnssec_check -n $ranging -l from -x -a '(date +%s)' -d 'the first moment'
complete -c dnssec_check -n $ranging -l to -x -a '(date +%s)' -d 'the last moment'
complete -c dnssec_check -n $listing -l statements -r -d 'what was checked'
complete -c dnssec_check -n $listing -l json -d 'one JSON object instead of lines'
complete -c dnssec_check -n '__fish_seen_subcommand_from list' -l all -d 'what every signature signs'
complete -c dnssec_check -n '__fish_seen_subcommand_from list' -l compact -d 'each octet once'
complete -c dnssec_check -n $asking -l anchors -r -d 'the trust anchors'
complete -c dnssec_check -n $asking -l name -x -d 'the name, with its last dot'
complete -c dnssec_check -n $asking -l type -x -ka '(__dnssec_check_types)' -d 'the number of the type'
complete -c dnssec_check -n '__fish_seen_subcommand_from timeline' -l kinds -d 'the kinds of verdicts alone'
complete -c dnssec_check -n $judging -l questions -r -d 'many questions, NAME N a line'
complete -c dnssec_check -n $asking -l answers -r -d 'what was checked, by number'
complete -c dnssec_check -n $judging -l keys -r -d 'keys of TSIG'
complete -c dnssec_check -n $judging -l macs -r -d 'MACs of the requests'

for name in capture verify judge
    complete -c dnssec_check-$name -l help -d 'print help'
    complete -c dnssec_check-$name -l version -d 'print the version'
end

complete -c dnssec_check-capture -l stream -r -d 'messages, each after its length'
complete -c dnssec_check-capture -l pcap -r -d packets
complete -c dnssec_check-capture -l hex -r -d 'a message a line'
complete -c dnssec_check-capture -l tshark -r -d 'packets, as tshark reads them'
complete -c dnssec_check-capture -l dnsviz -r -d 'the output of dnsviz probe'
complete -c dnssec_check-capture -l dig -r -d 'text, as dig, kdig and drill print it'
complete -c dnssec_check-capture -l atlas -r -d 'results of RIPE Atlas'
complete -c dnssec_check-capture -l dnstap -r -d 'a frame stream'
complete -c dnssec_check-capture -l port -x -a 53 -d 'a port of DNS'
complete -c dnssec_check-capture -l output -r -d 'the capture file'
complete -c dnssec_check-capture -l macs -r -d 'the MACs of the requests'
complete -c dnssec_check-capture -l split -r -d 'a new folder'
complete -c dnssec_check-capture -l quiet -d 'only what costs a verdict'

complete -c dnssec_check-verify -l from-check -d "pass over lines whose first word isn't todo"
complete -c dnssec_check-verify -l compact -d 'answer a compact list by number'
complete -c dnssec_check-verify -l capture -r -d 'what the compact list is of'
complete -c dnssec_check-verify -l moment -x -a '(date +%s)' -d 'that of the list'
complete -c dnssec_check-verify -l from -x -a '(date +%s)' -d 'the first of its range'
complete -c dnssec_check-verify -l to -x -a '(date +%s)' -d 'the last of its range'
complete -c dnssec_check-verify -l budget -x -d 'seconds of a processor'

complete -c dnssec_check-judge -l at -x -a 'now (date -u +%Y-%m-%dT%H:%M:%SZ)' -d 'when the signatures are to be in time'
complete -c dnssec_check-judge -l from -x -a 'now (date -u +%Y-%m-%dT%H:%M:%SZ)' -d 'all moments from this on'
complete -c dnssec_check-judge -l to -x -a 'now (date -u +%Y-%m-%dT%H:%M:%SZ)' -d 'to this one'
complete -c dnssec_check-judge -l timeline -d 'all moments that signatures span'
complete -c dnssec_check-judge -l verbose -d 'where other signatures take over, too'
complete -c dnssec_check-judge -l skew -x -d 'say what differs so long around'
complete -c dnssec_check-judge -l anchors -r -d 'the trust anchors'
complete -c dnssec_check-judge -l keys -r -d 'keys of TSIG'
complete -c dnssec_check-judge -l macs -r -d 'MACs of the requests'
complete -c dnssec_check-judge -l questions -r -d 'a question a line'
complete -c dnssec_check-judge -l every -d 'ask for all that captures have'
complete -c dnssec_check-judge -l zone -d 'ask of a zone by its transfer'
complete -c dnssec_check-judge -l port -x -a 53 -d 'a port of DNS'
complete -c dnssec_check-judge -l tsv -d 'a table'
complete -c dnssec_check-judge -l jsonl -d 'an object of JSON a line'
complete -c dnssec_check-judge -l resume -r -d 'a table of an earlier run'
complete -c dnssec_check-judge -l html -r -d 'a page with pictures'
complete -c dnssec_check-judge -l jobs -x -a '(nproc)' -d 'how many processes'
complete -c dnssec_check-judge -l scheduler -x -d 'of Dask'
complete -c dnssec_check-judge -l wait -x -d 'for a scheduler'
complete -c dnssec_check-judge -l program -r -d 'where dnssec_check is'
complete -c dnssec_check-judge -l records -d 'print the records of captures'
complete -c dnssec_check-judge -l budget -x -d 'for signatures'
complete -c dnssec_check-judge -l budget-octets -x -d 'of what is verified'
complete -c dnssec_check-judge -l budget-questions -x -d 'for questions'
complete -c dnssec_check-judge -l warn -d 'say what is odd of what is proved'
complete -c dnssec_check-judge -l soon -x -d 'how near an end is odd'
complete -c dnssec_check-judge -l fail-on -x -d 'end with status 8 for these kinds'

" Reports of snp, by docs/FORMATS.md: outcomes that are good, that say something was in use, and that are bad differ in colour.
if exists('b:current_syntax')
  finish
endif

syntax case match
syntax sync minlines=1

" of two matches at one place, the later one counts
syntax match snpreportError /[^ ]\+/
syntax match snpreportError /^ \+\| \@1<= \+\| \+$/
syntax match snpreportOperand / \@1<=\%(0x[0-9a-f]\{1,16}\|0\|[1-9][0-9]*\)\%( \|$\)\@=/
syntax match snpreportOperand / \@1<=\%(0x[0-9a-f]\{1,16}\|0\|[1-9][0-9]*\):[0-9]\+\%( \|$\)\@=/
syntax match snpreportOperand / \@1<=\%(-\|p\|s\|4k\|2m\)\%( \|$\)\@=/
syntax match snpreportGood / \@1<=\%(load 0x[0-9a-f]\+\|store\|swap 0x[0-9a-f]\+\|cas 0x[0-9a-f]\+ yes\|opaque\)$/
syntax match snpreportBad / \@1<=\%(cas 0x[0-9a-f]\+ no\|offline\|gp\|\%(npf\|vc\|pf\) 0x[0-9a-f]\+\)$/
syntax match snpreportBad / \@1<=\%(rc [1-9][0-9]*\|fw 0x[0-9a-f]\+\%( found [0-9a-f]\{32} kept [0-9a-f]\{32}\)\=\)$/
syntax match snpreportGood / \@1<=\%(rc 0\%( cf [01]\)\=\|fw 0x0\)$/
syntax match snpreportInUse / \@1<=\%(rc 3\|fw 0x100\) by [0-9]\+$/
syntax match snpreportSkip / \@1<=\%(skipped [0-9]\+\|next\)$/
syntax match snpreportDeed /\%(\.[0-9]\+ \)\@16<=\%(begin\|npt\|gpt\|data\|host\|lockg\=\|commitg\=\|compute\|skip\)\%( \|$\)\@=/
syntax match snpreportEvent /^[0-9]\+ [0-9]\+ [0-9]\+\.[0-9]\+\%( \%(begin\|npt\|gpt\|data\|host\|lockg\=\|commitg\=\|compute\|skip\)\%( \|$\)\)\@=/ contains=snpreportActor
syntax match snpreportActor /\%(^[0-9]\+ \)\@16<=[0-9]\+ \@=/ contained
syntax match snpreportCount / \@1<=[0-9]\+\*[1-9][0-9]*\%( \|$\)\@=/
syntax match snpreportState / \@1<=\%(absent\|init\|launching\|running\)\%( \|$\)\@=/
syntax match snpreportDigest / \@1<=[0-9a-f]\{96}\%( \|$\)\@=/
syntax match snpreportLine /^\%(snp-report\|order\|guest\|end\)\%( \|$\)\@=/
syntax match snpreportRefusal /^error \%(words\|read\|memory\|\%(scenario\|limit\|schedule\) .*\)$/

highlight default link snpreportError Error
highlight default link snpreportOperand Number
highlight default link snpreportGood String
highlight default link snpreportBad ErrorMsg
highlight default link snpreportInUse WarningMsg
highlight default link snpreportSkip Conditional
highlight default link snpreportDeed Function
highlight default link snpreportEvent LineNr
highlight default link snpreportActor Identifier
highlight default link snpreportCount Number
highlight default link snpreportState Type
highlight default link snpreportDigest String
highlight default link snpreportLine Statement
highlight default link snpreportRefusal ErrorMsg

let b:current_syntax = 'snpreport'

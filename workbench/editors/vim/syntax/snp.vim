" Scenarios and measure texts of snp, by docs/FORMATS.md: a word that no form has, and a space too many, are errors.
" With b:snp_short, the short forms of snp-lab write: there, what isn't known stays plain.
if exists('b:current_syntax')
  finish
endif

syntax case match
syntax sync minlines=1

" of two matches at one place, the later one counts
if !get(b:, 'snp_short')
  syntax match snpError /[^ ]\+/
  syntax match snpError /^ \+\| \@1<= \+\| \+$/
endif
syntax match snpNumber /\%(^\| \)\@1<=\%(0x[0-9a-f]\{1,16}\|0\|[1-9][0-9]*\)\%( \|$\)\@=/
syntax match snpKey / \@1<=[0-9a-f]\{64}\%( \|$\)\@=/
syntax match snpCount / \@1<=\%(0\|[1-9][0-9]*\)\*[1-9][0-9]*\%( \|$\)\@=/
syntax match snpWord / \@1<=\%(opened\|new\|asid\|iv\|key\|of\|at\|4k\|2m\|valid\|invalid\)\%( \|$\)\@=/
syntax match snpWord / \@1<=\%(cpu\|host\|fw\|vmpl\|npt\|flat\|gcr3\|la57\)\%( \|$\)\@=/
syntax match snpWord / \@1<=\%(if\|ok\|bad\|value\|retry\)\%( \|$\)\@=/
syntax match snpLine /^\%(snp\|snp-measure\|regions\|guest\|page\|word\|actor\|order\|end\)\%( \|$\)\@=/
syntax match snpItem /^\%(load\|store\|swap\|cas\|xor\|pvalidate\|rmpadjust\|rmpupdate\|psmash\)\%( \|$\)\@=/
syntax match snpItem /^\%(gctx_create\|activate\|launch_start\|launch_update\|launch_finish\|md_init\)\%( \|$\)\@=/
syntax match snpItem /^\%(page_move\|page_reclaim\|swap_out\|swap_in\|md_out\|md_in\|md_root_out\|md_root_in\)\%( \|$\)\@=/
syntax match snpSkip /^skip\%( \|$\)\@=/
if get(b:, 'snp_short')
  syntax match snpLine /^\%(frame\|map\)\%( \|$\)\@=/
endif
syntax match snpComment /^#.*$/ contains=snpExpect
syntax match snpExpect /^# \%(expect\|before\)\%( \|$\)\@=/ contained

highlight default link snpError Error
highlight default link snpNumber Number
highlight default link snpKey String
highlight default link snpCount Number
highlight default link snpWord Type
highlight default link snpLine Statement
highlight default link snpItem Function
highlight default link snpSkip Conditional
highlight default link snpComment Comment
highlight default link snpExpect SpecialComment

let b:current_syntax = 'snp'

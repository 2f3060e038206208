"""Which words of scenarios and reports are coloured, for Pygments; MkDocs loads this file as a hook of its build."""
from pygments.lexer import RegexLexer, bygroups
from pygments.lexers import LEXERS
from pygments.token import Comment, Generic, Keyword, Name, Number, Text

__all__ = ['SnpLexer']

LINES = r'(?:snp-report|snp|regions|guest|frame|page|word|map|actor|order|end)\b'
ITEMS = (r'(?:load|store|swap|cas|xor|pvalidate|rmpadjust|rmpupdate|psmash|gctx_create|activate|launch_start|launch_update'
         r'|launch_finish|md_init|page_move|swap_out|swap_in|md_out|md_in|md_root_out|md_root_in|page_reclaim|skip)\b')
DEEDS = r'(?:begin|npt|gpt|data|host|lockg|lock|commitg|commit|compute|skip)\b'
FAULTS = (r'(?:npf 0x[0-9a-f]+|vc 0x[0-9a-f]+|pf 0x[0-9a-f]+|gp\b|offline\b|rc [1-9]\d*(?: by \d+)?|fw 0x[1-9a-f][0-9a-f]*(?: by \d+)?'
          r'|opaque\b)')
GOOD = r'(?:rc 0(?: cf [01])?|fw 0x0)\b'
WORDS = r'(?:of|at|asid|iv|key|new|opened|running|valid|invalid|cpu|vmpl|flat|gcr3|la57|fw|host|retry|if|ok|bad|value|4k|2m)\b'


class SnpLexer(RegexLexer):
    """Scenarios, and the lines of reports."""
    name, aliases, filenames = 'Scenario', ['snp'], ['*.snp']
    tokens = {
        'root': [
            (r'(# expect\b)(.*)', bygroups(Comment.Special, Comment.Special)),
            (r'#.*', Comment),
            (r'(\d+)( )(\d+)( )(\d+\.\d+)( )(' + DEEDS + ')', bygroups(Number, Text, Keyword, Text, Number, Text, Name.Builtin), 'rest'),
            (LINES, Keyword, 'rest'),
            (ITEMS, Name.Function, 'rest'),
            (r'\n', Text),
            (r'[^\n]', Text, 'rest'),
        ],
        'rest': [
            (r'\n', Text, '#pop'),
            (r'[0-9a-f]{32,}\b', Text),
            (FAULTS, Generic.Error),
            (GOOD, Generic.Inserted),
            (r'(?:load|swap|store|cas|found|kept|skipped|next)\b', Name.Function),
            (WORDS, Name.Attribute),
            (r'(?:0x[0-9a-f]+|\d+)\b', Number),
            (r'[a-z_]+', Text),
            (r'.', Text),
        ],
    }


LEXERS['SnpLexer'] = ('snp_lexer', SnpLexer.name, tuple(SnpLexer.aliases), tuple(SnpLexer.filenames), ())

"""What the commands of bin/ share: how one is called and ends (calls), the proved programs (programs), the rules that they go by
(rules), a record (record) and its text (record_text), the folder release/ (release), and the kit (kit)."""
import _signal as signal  # the module signal takes longer, and this is to come first

# until a command can say more, an interrupt ends it without a word, and not with a traceback
if signal.getsignal(signal.SIGINT) is signal.default_int_handler:
    signal.signal(signal.SIGINT, signal.SIG_DFL)

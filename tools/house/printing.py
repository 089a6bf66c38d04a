"""How the tools that print much end."""
import signal


def end_with_reader():
    """From now on the process ends without a word where nobody reads its output any more, as `head` and `less` do to it."""
    signal.signal(signal.SIGPIPE, signal.SIG_DFL)

"""What trace-from-captures and trace-from-capture share: reading captures by tshark, matching packets, writing a trace."""


class CaptureError(Exception):
    """Ends a script with a message on standard error and the status 1."""

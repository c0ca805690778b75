"""When what a check began counts as hanging."""

# The seconds of the clock after which it does. Most take some seconds, and none more than ten
# minutes. But a machine may lend a tenth of its processors: no check judges speed by the clock.
HANGS = 3600

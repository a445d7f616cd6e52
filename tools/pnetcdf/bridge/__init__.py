"""What the tools of the bridge share: traces, scripts, runs, datasets and findings."""

VERSION = "1.0"

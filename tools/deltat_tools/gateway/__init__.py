"""The gateway between HTTP and calls: configuration, messages, journals, and its two sides."""

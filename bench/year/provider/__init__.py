"""A provider's year: two servers under clocks that the driver sets, its customers, and what befalls both."""

"""The package `surfbasis`: what makes its wheel; its sources and tests stand below."""

"""What makes a release: an archive, and a package for Debian. Not the package of that name which others install."""

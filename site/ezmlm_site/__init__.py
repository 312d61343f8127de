"""The archive of a mailing list as a site of static pages, with a search beside it."""

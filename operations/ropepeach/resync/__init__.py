"""Documents of the ResourceSync Framework (ANSI/NISO Z39.99-2017): lists, discovery, dumps, filters."""

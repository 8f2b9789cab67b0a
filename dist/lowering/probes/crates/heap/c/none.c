/* rt wants a folder c/ where a crate declares functions of C. Nothing of it is linked. */

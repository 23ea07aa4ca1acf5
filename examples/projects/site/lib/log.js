// Nothing is imported here.
;

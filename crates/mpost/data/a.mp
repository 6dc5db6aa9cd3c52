show 1/3+2;end

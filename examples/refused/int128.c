__int128 sum;

m () 
{ 
    bash lab.sh $WORK/mylab && for i in 1 2;
    do
        ./read | sed -n 6p;
    done;
    a=$(valgrind --tool=callgrind --callgrind-out-file=/dev/null ./read calls proved 8191 1 2>&1 | awk '/Collected/{print $4}');
    b=$(valgrind --tool=callgrind --callgrind-out-file=/dev/null ./read calls proved 8191 11 2>&1 | awk '/Collected/{print $4}');
    echo "Ir/call $(( (b-a)/10 ))"
}

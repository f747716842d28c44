cd ${R:-$REPO}; RT_CUT=0 RT_JOBS=2 rt dev ${1:-writer} --allow-holes > $WORK/dev.log 2>&1
grep -v 'large\|what antt\|^note\|^  was found\|^  = \|^  `omega`\|^help' $WORK/dev.log | grep -A${2:-12} "error\|goal\|unsolved\|^fn.*no proof\|not cover" | cut -c1-${3:-700} | grep -v "no holes" | head -${4:-70}

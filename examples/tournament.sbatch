#!/bin/bash
# A Slurm array of tournaments in turns, whose games are the same on busy nodes. If tasks were
# stopped or requeued, the same command plays the games that are missing. From the top of the clone:
#
#     sbatch examples/tournament.sbatch mine.py examples/agents/planner.py
#     ./geesefuton tournament --join runs/*
#
#SBATCH --job-name=tournament
#SBATCH --array=0-49
#SBATCH --cpus-per-task=4
#SBATCH --mem=2G
#SBATCH --time=00:30:00
#SBATCH --requeue
exec ./geesefuton tournament --turns 40 --games 20 --out "runs/$SLURM_ARRAY_TASK_ID" --resume "$@"
